from behave import then, when


@when("this is skipped")
def skip(context):
    context.feature.skip()


@then("it fails")
def fails(context):
    assert False
