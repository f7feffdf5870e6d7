from behave import then, when


@when("it fails")
def fails(context):
    assert False


@then("failed isn't set")
def no_mark(context):
    assert not context.failed
