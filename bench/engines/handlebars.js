// Renders the templates of bench/templates by Handlebars, as often as it is told. node handlebars.js HANDLEBARS.JS FILE:
// the file has the cases as JSON. Lines on standard input are `text CASE`, answered by the rendered text as JSON, and
// `run CASE COUNT` and `alone CASE COUNT`, answered by the length of so many rendered texts: `alone` reads neither query
// nor body, but renders over data that were read before. Templates are compiled before the first line is read: Handlebars
// makes their code at the first rendering, and `text` is asked first.
const fs = require('fs');
const path = require('path');
const readline = require('readline');
const Handlebars = require(path.resolve(process.argv[2]));

const isAscii = /^[\x00-\x7f]*$/;
const isBlank = c => c === 32 || (c >= 9 && c <= 13 && c !== 11);

function upper(text) {
  return isAscii.test(text) ? text.toUpperCase() : text.replace(/[a-z]+/g, part => part.toUpperCase());
}

function lower(text) {
  return isAscii.test(text) ? text.toLowerCase() : text.replace(/[A-Z]+/g, part => part.toLowerCase());
}

function trim(text) {
  let begin = 0, end = text.length;
  while (begin < end && isBlank(text.charCodeAt(begin))) begin++;
  while (end > begin && isBlank(text.charCodeAt(end - 1))) end--;
  return text.slice(begin, end);
}

// The steps of the JSON paths so far: paths are read once, as templates are.
const read = new Map();

function stepsOf(jsonPath) {
  let steps = read.get(jsonPath);
  if (!steps) read.set(jsonPath, steps = jsonPath.slice(2).split('.'));
  return steps;
}

function find(value, jsonPath) {
  for (const step of stepsOf(jsonPath)) {
    if (value === null || typeof value !== 'object') return undefined;
    value = value[step];
  }
  return value;
}

Handlebars.registerHelper({ upper, lower, trim, jsonPath: find, eq: (one, other) => one === other });

// The names of a query, each with its value, or with all of them in a list.
function valuesOf(query) {
  const values = {};
  for (const [name, value] of new URLSearchParams(query)) {
    const found = values[name];
    if (found === undefined) values[name] = value;
    else if (Array.isArray(found)) found.push(value);
    else values[name] = [found, value];
  }
  return values;
}

// One rendering, which begins with the texts of the query and of the body, if there is one, and one over data that were
// read before.
function rendering({ handlebars, request, query, body }) {
  const template = Handlebars.compile(handlebars, { noEscape: true });
  const read = () => body === null ? { ...request, query: valuesOf(query) } : { body: JSON.parse(body) };
  const data = { request: read() };
  return { run: () => template({ request: read() }), alone: () => template(data) };
}

const cases = JSON.parse(fs.readFileSync(process.argv[3], 'utf8'));
const renderings = new Map(Object.entries(cases).map(([name, one]) => [name, rendering(one)]));

readline.createInterface({ input: process.stdin }).on('line', line => {
  const [what, name, count] = line.split(' ');
  if (what === 'text') {
    console.log(JSON.stringify(renderings.get(name).run()));
    return;
  }
  const render = renderings.get(name)[what];
  let length = 0;
  for (let i = 0; i < Number(count); i++) length += render().length;
  console.log(length);
});
