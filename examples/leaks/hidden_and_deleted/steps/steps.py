from behave import then, when


@when("n is set to {n:d}")
def set_n(context, n):
    context.n = n


@when("n is deleted")
def delete_n(context):
    del context.n


@then("n is {n:d}")
def n_is(context, n):
    assert context.n == n
