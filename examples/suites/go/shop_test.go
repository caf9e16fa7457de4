package shop

import "testing"

func TestAnOrderIsTakenOnce(t *testing.T) {
	mock := fresh(t)
	request := object{"method": "POST", "urlPath": "/orders", "bodyPatterns": []object{{"equalToJson": object{"item": "milk"}}}}
	mock.stub(t, object{"request": request, "response": object{"status": 201}})
	if status, _ := mock.call(t, "POST", "/orders", object{"item": "milk"}); status != 201 {
		t.Error(status)
	}
	if count := mock.count(t, object{"method": "POST", "urlPath": "/orders"}); count != 1 {
		t.Error(count)
	}
}

func TestASecondTrySucceeds(t *testing.T) {
	mock := fresh(t)
	mock.stub(t, object{"scenarioName": "tries", "requiredScenarioState": "Started", "newScenarioState": "tried",
		"request": object{"urlPath": "/stock"}, "response": object{"status": 503}})
	mock.stub(t, object{"scenarioName": "tries", "requiredScenarioState": "tried",
		"request": object{"urlPath": "/stock"}, "response": object{"jsonBody": object{"milk": 3}}})
	if status, _ := mock.call(t, "GET", "/stock", nil); status != 503 {
		t.Error(status)
	}
	if status, text := mock.call(t, "GET", "/stock", nil); status != 200 || text != `{"milk":3}` {
		t.Error(status, text)
	}
	if status, _ := mock.call(t, "GET", "/orders", nil); status != 404 { // the mapping of the other test is gone
		t.Error(status)
	}
}
