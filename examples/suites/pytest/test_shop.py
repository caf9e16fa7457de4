def test_an_order_is_taken_once(mock):
    mock.stub({"method": "POST", "urlPath": "/orders", "bodyPatterns": [{"equalToJson": {"item": "milk"}}]}, {"status": 201})
    assert mock.call("POST", "/orders", {"item": "milk"})[0] == 201
    assert mock.count({"method": "POST", "urlPath": "/orders"}) == 1


def test_a_second_try_succeeds(mock):
    first = {"scenarioName": "tries", "requiredScenarioState": "Started", "newScenarioState": "tried"}
    mock.stub({"urlPath": "/stock"}, {"status": 503}, **first)
    mock.stub({"urlPath": "/stock"}, {"jsonBody": {"milk": 3}}, scenarioName="tries", requiredScenarioState="tried")
    assert [mock.call("GET", "/stock") for _ in range(2)] == [(503, ""), (200, '{"milk":3}')]
    assert mock.call("GET", "/orders")[0] == 404  # the mapping of the other test is gone
