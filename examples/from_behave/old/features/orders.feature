Feature: Orders
  Scenario: An order has several lines
    Given Ada orders:
      '''
      3 apples
      1 loaf of bread
      '''
    then Ada's order includes "bread"

  Scenario: An order is cancelled
    Given Ada orders "3 apples"
    When Ada's Order is cancelled
    Then Ada has no order

  @eu
  Scenario Outline: An order says where it goes to: <name>
    Given <name> orders "<what>"
    Then the region is eu
    And <name>'s order includes "<what>"

    Examples:
      | name | what   |
      | Ada  | apples |
      | Bob  | pears  |

  @slow
  Scenario: An order takes its time
    Given Ada orders "3 apples"
    Then Ada's order includes "3 apples"
