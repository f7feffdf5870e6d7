Feature: Bill
  @breakfast
  Scenario: Prices are added
    Then the file "out" should be:
      """
      total 5.05

      """
    And the variable "STATUS" should be "0"

  @smudged
  Scenario: A line without a price is named
    Then the file "err" should contain "line 2"
    And the file "out" should be:
      """
      """
    And the variable "STATUS" should be "2"
