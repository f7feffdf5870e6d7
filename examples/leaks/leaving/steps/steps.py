import sys

from behave import then, when


@when("this is left")
def leave(context):
    sys.exit(0)


@then("it fails")
def fails(context):
    assert False
