Feature: A report for other programs
  Scenario: A text with a "quote" and a \
    Given a file named "f" containing "one"
    Then the file "f" should be "two"
