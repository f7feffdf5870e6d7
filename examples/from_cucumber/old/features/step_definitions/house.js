const assert = require('node:assert');
const { Given, When, Then } = require('@cucumber/cucumber');

Given(/^the (\w+) lamp is (on|off)$/, function (name, state) {
  this.lamps[name] = state;
});

Then('the {word} lamp should be {word}', function (name, state) {
  assert.equal(this.lamps[name], state);
});

Given('{int} lamp(s) in the {word}', function (n, room) {
  this.rooms[room] = n;
});

When('{int} more lamp(s) come(s) to the {word}', function (n, room) {
  this.rooms[room] += n;
});

Then('there should be {int} lamps in the {word}', function (n, room) {
  assert.equal(this.rooms[room], n);
});

Given('a letter to {string}:', function (name, text) {
  this.letters[name] = text;
});

When('{string} reads {string}', function (name, what) {
  assert.ok(name in this.letters, what);
});

When('the letter to {string} is lost', function (name) {
  delete this.letters[name];
});

Then('the letter to {string} mentions {string}', function (name, text) {
  assert.ok(this.letters[name].includes(text));
});

Then('there is no letter to {string}', function (name) {
  assert.ok(!(name in this.letters));
});
