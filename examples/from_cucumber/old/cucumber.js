module.exports = { default: { tags: 'not @wip' } };
