Feature: A file
  Scenario: B
    Then there is no order

  Scenario: A
    When an order for bread is written
