from behave import then, when


@when("{text} is put into the basket")
def put(context, text):
    context.basket.append(text)


@then("the basket is as it was: {text}")
def is_as_it_was(context, text):
    assert context.basket == [text]
