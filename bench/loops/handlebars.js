// node bench/loops/handlebars.js HANDLEBARS.JS: what Handlebars takes for the template of main.txt over the same values.
// Debian's libjs-handlebars has /usr/share/javascript/handlebars/handlebars.js.
const path = require('path');
const Handlebars = require(path.resolve(process.argv[2]));

const template = Handlebars.compile('{{#each request.query.q}}{{this}},{{/each}}', { noEscape: true });
const data = { request: { query: { q: Array.from({ length: 1000 }, (_, i) => String(i)) } } };

function microseconds(rounds) {
  const begin = process.cpuUsage();
  for (let i = 0; i < rounds; i++) template(data);
  const used = process.cpuUsage(begin);
  return (used.user + used.system) / rounds;
}

microseconds(5000); // until the template's code is compiled
const taken = Array.from({ length: 9 }, () => microseconds(2000)).sort((a, b) => a - b);
const bytes = template(data).length;
console.log(`Handlebars ${Handlebars.VERSION}: ${taken[4].toFixed(1)} us of processor time a run (${taken[0].toFixed(1)} to ${taken[8].toFixed(1)}), ${bytes} bytes`);
