import os

from behave import then, when


@when("an order for {text} is written")
def write(context, text):
    with open("order", "w", encoding="utf-8") as file:
        file.write(text)


@then("there is no {name}")
def is_absent(context, name):
    assert not os.path.exists(name)
