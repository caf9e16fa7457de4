import java.io.BufferedReader;
import java.io.IOException;
import java.io.InputStreamReader;
import java.net.URI;
import java.net.http.HttpClient;
import java.net.http.HttpRequest;
import java.net.http.HttpRequest.BodyPublishers;
import java.net.http.HttpResponse;
import java.net.http.HttpResponse.BodyHandlers;
import java.util.Optional;

/** Two tests with a stub server, by Java's own HttpClient: `java ShopTest.java`. In JUnit, `Mock` is made before all tests
 *  and ended after them, and `reset` is called before each. */
public class ShopTest {
    static class Mock {
        private final HttpClient client = HttpClient.newHttpClient();
        private final Process process;
        private final BufferedReader output;
        private final String url;

        Mock() throws IOException {
            String program = Optional.ofNullable(System.getenv("MOCK")).orElse("mock");
            process = new ProcessBuilder(program, "serve", "--port", "0", "--end-with-stdin")
                .redirectError(ProcessBuilder.Redirect.INHERIT).start();
            output = new BufferedReader(new InputStreamReader(process.getInputStream()));
            String first = output.readLine(); // listening on 127.0.0.1:PORT
            url = "http://" + first.substring("listening on ".length());
        }

        HttpResponse<String> call(String method, String path, String body) throws Exception {
            HttpRequest request = HttpRequest.newBuilder(URI.create(url + path))
                .method(method, body.isEmpty() ? BodyPublishers.noBody() : BodyPublishers.ofString(body)).build();
            return client.send(request, BodyHandlers.ofString());
        }

        void stub(String mapping) throws Exception {
            HttpResponse<String> answer = call("POST", "/__admin/mappings", mapping);
            same(answer.statusCode() + " " + (answer.statusCode() == 201 ? "" : answer.body()), "201 ");
        }

        /** How many requests were received that match, as `{"count":1}`. */
        String count(String request) throws Exception {
            return call("POST", "/__admin/requests/count", request).body();
        }

        void reset() throws Exception {
            call("POST", "/__admin/reset", "");
        }

        /** It ends with its standard input: what it says then is the number of events that it has compared. */
        void end() throws Exception {
            process.getOutputStream().close();
            same(output.readLine().replaceAll("[0-9]+", "N"), "settled N events");
            same(process.waitFor(), 0);
        }
    }

    static void same(Object found, Object wanted) {
        if (!found.equals(wanted)) {
            throw new AssertionError(found + ", and not " + wanted);
        }
    }

    static void anOrderIsTakenOnce(Mock mock) throws Exception {
        mock.stub("{\"request\":{\"method\":\"POST\",\"urlPath\":\"/orders\","
            + "\"bodyPatterns\":[{\"equalToJson\":{\"item\":\"milk\"}}]},\"response\":{\"status\":201}}");
        same(mock.call("POST", "/orders", "{\"item\":\"milk\"}").statusCode(), 201);
        same(mock.count("{\"method\":\"POST\",\"urlPath\":\"/orders\"}"), "{\"count\":1}");
    }

    static void aSecondTrySucceeds(Mock mock) throws Exception {
        mock.stub("{\"scenarioName\":\"tries\",\"requiredScenarioState\":\"Started\",\"newScenarioState\":\"tried\","
            + "\"request\":{\"urlPath\":\"/stock\"},\"response\":{\"status\":503}}");
        mock.stub("{\"scenarioName\":\"tries\",\"requiredScenarioState\":\"tried\","
            + "\"request\":{\"urlPath\":\"/stock\"},\"response\":{\"jsonBody\":{\"milk\":3}}}");
        same(mock.call("GET", "/stock", "").statusCode(), 503);
        HttpResponse<String> second = mock.call("GET", "/stock", "");
        same(second.statusCode() + " " + second.body(), "200 {\"milk\":3}");
        same(mock.call("GET", "/orders", "").statusCode(), 404); // the mapping of the other test is gone
    }

    interface Test {
        void run(Mock mock) throws Exception;
    }

    public static void main(String[] arguments) throws Exception {
        Mock mock = new Mock();
        for (Test test : new Test[] {ShopTest::anOrderIsTakenOnce, ShopTest::aSecondTrySucceeds}) {
            mock.reset();
            test.run(mock);
        }
        mock.end();
        System.out.println("2 tests passed");
    }
}
