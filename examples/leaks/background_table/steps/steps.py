from behave import given, then, when


@given("these files")
def these_files(context):
    context.files = context.table


@when("the file {name} is taken out")
def take_out(context, name):
    context.files.rows[:] = [row for row in context.files if row["name"] != name]


@then("the file {name} is there")
def is_there(context, name):
    assert name in [row["name"] for row in context.files]
