from behave import given, step, then


@step("it passes")
def passes(context):
    pass


@given("x")
def given_x(context):
    pass


@then("x")
def then_x(context):
    assert False, "x is no given"
