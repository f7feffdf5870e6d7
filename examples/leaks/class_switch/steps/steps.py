from behave import then, when
from behave.model import Scenario


@when("later steps go on")
def go_on(context):
    Scenario.continue_after_failed_step = True


@when("it fails")
def fails(context):
    assert False


@then("a mark is left")
def leave_mark(context):
    pass
