def fails():
    assert False


def before_feature(context, feature):
    context.add_cleanup(fails)
