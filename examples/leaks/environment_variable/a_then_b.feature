Feature: A variable of the environment
  Scenario: A
    When REGION is set to eu

  Scenario: B
    Then REGION is unset
