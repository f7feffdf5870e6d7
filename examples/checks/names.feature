Feature: Letters
  Scenario: The names are sorted
    Then the file "sorted" should be:
      """
      Ada
      Bob
      Cleo

      """

  Scenario: Each name has a letter
    Then the file "letters" should contain "Dear Ada,"
    And the file "letters" should contain "Dear Bob,"
    And the file "letters" should contain "Dear Cleo,"
