from behave import then, when

basket = []


@when("{text} is put into the basket")
def put(context, text):
    basket.append(text)


@then("nothing is in the basket")
def is_empty(context):
    assert basket == []
