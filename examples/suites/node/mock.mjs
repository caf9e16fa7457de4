// A stub server for tests by Node's own runner.
import { spawn } from 'node:child_process';
import { once } from 'node:events';
import { createInterface } from 'node:readline';

export class Mock {
  static async start() {
    const mock = new Mock();
    const given = ['serve', '--port', '0', '--end-with-stdin'];
    mock.process = spawn(process.env.MOCK ?? 'mock', given, { stdio: ['pipe', 'pipe', 'inherit'] });
    mock.ended = once(mock.process, 'close');
    mock.lines = createInterface({ input: mock.process.stdout })[Symbol.asyncIterator]();
    const first = await mock.lines.next(); // listening on 127.0.0.1:PORT
    mock.url = `http://${/^listening on (\S+)$/.exec(first.value)[1]}`;
    return mock;
  }

  /** The status of the answer and its text. A body is sent as JSON. */
  async call(method, path, body) {
    const answer = await fetch(this.url + path, { method, body: body && JSON.stringify(body) });
    return [answer.status, await answer.text()];
  }

  async stub(request, response, more = {}) {
    const [status, text] = await this.call('POST', '/__admin/mappings', { request, response, ...more });
    if (status !== 201) throw new Error(text);
  }

  /** How many requests were received that match. */
  async count(request) {
    return JSON.parse((await this.call('POST', '/__admin/requests/count', request))[1]).count;
  }

  reset() {
    return this.call('POST', '/__admin/reset');
  }

  /** It ends with its standard input: what it says then is the number of events that it has compared. */
  async end() {
    this.process.stdin.end();
    const last = await this.lines.next();
    const [status] = await this.ended;
    return [status, last.value];
  }
}
