// A stub server for tests by Go's testing.
package shop

import (
	"bufio"
	"bytes"
	"encoding/json"
	"fmt"
	"io"
	"net/http"
	"os"
	"os/exec"
	"regexp"
	"strings"
	"testing"
)

type object = map[string]any

type mockServer struct {
	process *exec.Cmd
	input   io.Closer
	output  *bufio.Reader
	url     string
}

var server *mockServer

func startMock() (*mockServer, error) {
	program := os.Getenv("MOCK")
	if program == "" {
		program = "mock"
	}
	process := exec.Command(program, "serve", "--port", "0", "--end-with-stdin")
	process.Stderr = os.Stderr
	input, err := process.StdinPipe()
	if err != nil {
		return nil, err
	}
	output, err := process.StdoutPipe()
	if err != nil {
		return nil, err
	}
	if err := process.Start(); err != nil {
		return nil, err
	}
	mock := &mockServer{process: process, input: input, output: bufio.NewReader(output)}
	first, err := mock.output.ReadString('\n') // listening on 127.0.0.1:PORT
	if err != nil {
		return nil, err
	}
	mock.url = "http://" + strings.TrimPrefix(strings.TrimSpace(first), "listening on ")
	return mock, nil
}

// The status of the answer and its text. A body is sent as JSON.
func (mock *mockServer) call(t *testing.T, method, path string, body any) (int, string) {
	t.Helper()
	var content io.Reader
	if body != nil {
		text, err := json.Marshal(body)
		if err != nil {
			t.Fatal(err)
		}
		content = bytes.NewReader(text)
	}
	request, err := http.NewRequest(method, mock.url+path, content)
	if err != nil {
		t.Fatal(err)
	}
	answer, err := http.DefaultClient.Do(request)
	if err != nil {
		t.Fatal(err)
	}
	defer answer.Body.Close()
	text, err := io.ReadAll(answer.Body)
	if err != nil {
		t.Fatal(err)
	}
	return answer.StatusCode, string(text)
}

func (mock *mockServer) stub(t *testing.T, mapping object) {
	t.Helper()
	if status, text := mock.call(t, "POST", "/__admin/mappings", mapping); status != 201 {
		t.Fatal(text)
	}
}

// How many requests were received that match.
func (mock *mockServer) count(t *testing.T, request object) int {
	t.Helper()
	_, text := mock.call(t, "POST", "/__admin/requests/count", request)
	var found struct{ Count int }
	if err := json.Unmarshal([]byte(text), &found); err != nil {
		t.Fatal(err)
	}
	return found.Count
}

// It ends with its standard input: what it says then is the number of events that it has compared.
func (mock *mockServer) end() error {
	mock.input.Close()
	last, err := mock.output.ReadString('\n')
	if err != nil {
		return err
	}
	if !regexp.MustCompile(`^settled \d+ events\n$`).MatchString(last) {
		return fmt.Errorf("the server ended with %q", last)
	}
	return mock.process.Wait()
}

func TestMain(m *testing.M) {
	var err error
	if server, err = startMock(); err != nil {
		fmt.Fprintln(os.Stderr, err)
		os.Exit(1)
	}
	status := m.Run()
	if err := server.end(); err != nil {
		fmt.Fprintln(os.Stderr, err)
		status = 1
	}
	os.Exit(status)
}

// A server without mappings.
func fresh(t *testing.T) *mockServer {
	t.Helper()
	server.call(t, "POST", "/__admin/reset", nil)
	return server
}
