import assert from 'node:assert/strict';
import { after, before, beforeEach, test } from 'node:test';
import { Mock } from './mock.mjs';

let mock;
before(async () => { mock = await Mock.start(); });
beforeEach(() => mock.reset());
after(async () => {
  const [status, last] = await mock.end();
  assert.equal(status, 0);
  assert.match(last, /^settled \d+ events$/);
});

test('an order is taken once', async () => {
  const pattern = { equalToJson: { item: 'milk' } };
  await mock.stub({ method: 'POST', urlPath: '/orders', bodyPatterns: [pattern] }, { status: 201 });
  assert.equal((await mock.call('POST', '/orders', { item: 'milk' }))[0], 201);
  assert.equal(await mock.count({ method: 'POST', urlPath: '/orders' }), 1);
});

test('a second try succeeds', async () => {
  const name = { scenarioName: 'tries' };
  const first = { ...name, requiredScenarioState: 'Started', newScenarioState: 'tried' };
  await mock.stub({ urlPath: '/stock' }, { status: 503 }, first);
  await mock.stub({ urlPath: '/stock' }, { jsonBody: { milk: 3 } }, { ...name, requiredScenarioState: 'tried' });
  assert.deepEqual(await mock.call('GET', '/stock'), [503, '']);
  assert.deepEqual(await mock.call('GET', '/stock'), [200, '{"milk":3}']);
  assert.equal((await mock.call('GET', '/orders'))[0], 404); // the mapping of the other test is gone
});
