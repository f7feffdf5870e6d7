Feature: A file
  Scenario: B
    Then there is no order
