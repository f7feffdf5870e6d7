Feature: Orders
  The night's run takes everything; before a change is handed in, only what is quick and
  concerns the pages or the database: not @slow and (@ui or @db)

  @ui
  Scenario: A page shows the order
    Given a file named "page" containing "2 loaves"
    Then the file "page" should contain "2 loaves"

  @ui @slow
  Scenario: Every page shows its orders
    Given it fails

  @db
  Scenario: An order is kept
    Given the value "order" is set to "2 loaves"
    Then the value "order" should be "2 loaves"

  @mail
  Scenario: A letter is sent
    Given it fails

  @db @mail
  Scenario Outline: A letter is kept, for <day>
    Given a file named "<day>" containing "a letter"
    Then the file "<day>" should exist

    Examples: working days
      | day    |
      | Monday |

    @slow
    Examples: holidays
      | day    |
      | Sunday |
