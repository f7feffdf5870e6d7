Feature: Letters
  Scenario: A letter is written and read
    Given a letter to "Ada":
      """text
      The hall lamp is broken.
      """
    When "Ada" reads "her letter"
    Then the letter to "Ada" mentions "hall lamp"

  @wip
  Scenario: A letter is lost
    Given a letter to "Bob":
      """
      Where is my lamp?
      """
    When the letter to "Bob" is lost
    Then there is no letter to "Bob"
