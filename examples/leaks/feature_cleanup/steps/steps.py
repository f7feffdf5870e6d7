from behave import then


@then("it passes")
def passes(context):
    pass
