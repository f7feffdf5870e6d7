Feature: A variable of the environment
  Scenario: B
    Then REGION is unset

  Scenario: A
    When REGION is set to eu
