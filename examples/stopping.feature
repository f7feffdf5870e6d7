Feature: A run that stops at the first failure
  Scenario: This one passes
    Given the file "log" should be "begun"

  Scenario: This one fails
    Given the file "log" is extended with ", and more"
    Then the file "log" should be "begun"

  Scenario: This one isn't reached
    Given the file "log" should be "begun"
    And nobody has written this step
