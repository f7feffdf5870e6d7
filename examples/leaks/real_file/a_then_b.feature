Feature: A file
  Scenario: A
    When an order for bread is written

  Scenario: B
    Then there is no order
