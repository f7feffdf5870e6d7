def before_feature(context, feature):
    context.basket = ["milk"]
