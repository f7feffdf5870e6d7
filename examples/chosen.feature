# Runs with --tags: the scenarios that are slow, or need a network, are left out.
@shop
Feature: Orders
  Scenario Outline: An order of <count> <fruit>
    Given the number "<fruit>" is set to <count>
    When the number "<fruit>" grows by <more>
    Then the number "<fruit>" should be <sum>

    Examples: small
      | fruit  | count | more | sum |
      | apples | 1     | 2    | 3   |
      | pears  | 0     | -1   | -1  |

    @slow
    Examples: large
      | fruit | count | more                | sum                 |
      | plums | 7     | 9223372036854775800 | 9223372036854775807 |

  @network
  Scenario: An order by mail
    Given it fails

  @network @fast
  Scenario: An order by telephone
    Given it passes
