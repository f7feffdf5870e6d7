import os

from behave import then, when


@when("{name} is set to {text}")
def set_variable(context, name, text):
    os.environ[name] = text


@then("{name} is unset")
def is_unset(context, name):
    assert name not in os.environ
