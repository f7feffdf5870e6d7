# A till for each rule: ./run --hooks examples/rules.hooks examples/rules.feature
Feature: A shop with tills
  Scenario: No till is open yet
    Then the number "stock" should be 10
    And the value "till" should be absent

  Rule: What is sold is paid
    Background:
      Given the file "journal" should be "shop opened, till opened"

    Scenario: An apple is sold
      When the number "stock" grows by -1
      And the number "till" grows by 2
      Then the number "stock" should be 9
      And the number "till" should be 102

    Scenario: The till is as it was opened
      Then the number "stock" should be 10
      And the number "till" should be 100

  @delivery
  Rule: What is delivered is put on the shelf
    Scenario: Pears are delivered
      When the number "stock" grows by 5
      Then the number "stock" should be 15

  @sale
  Rule: In a sale everything costs half
    Scenario Outline: <count> pears are sold
      Given the variable "PRICE" should be "half"
      When the number "till" grows by <count>
      Then the number "till" should be <in all>

      Examples:
        | count | in all |
        | 1     | 101    |
        | 2     | 102    |
