Feature: A hooks file whose heading is misspelt
  Scenario: It isn't run
    Given it passes
