import os

from behave import given, step, then, when


@step("{n:d} {name} in stock")
def in_stock(context, n, name):
    context.stock[name] = n


@when("{n:d} {name} are sold")
def sold(context, n, name):
    context.stock[name] -= n


@then("{n:d} {name} are left")
def left(context, n, name):
    assert context.stock[name] == n, context.stock[name]


@then("the price of {name} is {n:d} euros")
def price_is(context, name, n):
    assert context.prices[name] == n


@given("{name} orders")
def order_with_text(context, name):
    context.orders[name] = context.text


@given('{name} orders "{what}"')
def order(context, name, what):
    context.orders[name] = what


@when("{name}'s order is cancelled")
def cancel(context, name):
    del context.orders[name]


@then("{name} has no order")
def no_order(context, name):
    assert name not in context.orders


@then('{name}\'s order includes "{what}"')
def order_includes(context, name, what):
    assert what in context.orders[name]


@then("the region is {region}")
def region_is(context, region):
    assert os.environ["REGION"] == region
