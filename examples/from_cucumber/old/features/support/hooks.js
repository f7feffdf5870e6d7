const { After, Before } = require('@cucumber/cucumber');

Before(function () {
  this.lamps = {};
  this.rooms = {};
  this.letters = {};
});

Before({ tags: '@house' }, function () {
  this.lamps.kitchen = 'off';
});

After({ tags: '@house' }, function () {
  if (this.lamps.kitchen !== 'off') throw new Error('the kitchen lamp was left on');
});
