Feature: A dry run
  Scenario: This one would fail, and isn't run
    Given the file "price" should exist

  Scenario: This one has a step that nobody has written
    Given a file named "price" containing "5"
    When the file "price" is extendid with "0"
    Then the file "price" should be "50"
