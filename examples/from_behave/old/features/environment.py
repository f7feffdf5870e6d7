import os


def before_feature(context, feature):
    context.prices = {"apples": 2}


def before_scenario(context, scenario):
    context.orders = {}
    context.stock = {}


def before_tag(context, tag):
    if tag == "eu":
        os.environ["REGION"] = "eu"


def after_tag(context, tag):
    if tag == "eu":
        del os.environ["REGION"]


def after_scenario(context, scenario):
    assert "the guest" not in context.orders, "the guest has an order"
