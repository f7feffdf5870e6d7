# A small suite over configuration files, an environment and a counter.
@settings
Feature: Settings of the shop
  The shop reads shop.conf, and the environment wins over it.

  Background: a fresh shop
    Given a file named "shop.conf" with:
      """
      port = 8080
      currency = EUR
      """
    And the number "starts" is set to 0

  Scenario: The file alone
    When the number "starts" grows by 1
    Then the file "shop.conf" should contain "currency = EUR"
    And the variable "SHOP_PORT" should be unset
    And the number "starts" should be 1

  Scenario: The environment wins
    Given the variable "SHOP_PORT" is set to "9090"
    When the number "starts" grows by 1
    Then the variable "SHOP_PORT" should be "9090"
    And the file "shop.conf" should contain "port = 8080"

  Scenario: A line is added
    When the file "shop.conf" is extended with:
      """

      colour = blue
      """
    Then the file "shop.conf" should be:
      """
      port = 8080
      currency = EUR
      colour = blue
      """

  Rule: Old settings are kept in a backup

    Scenario: The backup replaces an older one
      Given a file named "shop.conf.old" containing "port = 80"
      When the file "shop.conf" is renamed to "shop.conf.old"
      Then the file "shop.conf" should not exist
      And the file "shop.conf.old" should contain "8080"

    Scenario Outline: Settings for <country>
      Given these files:
        | name           | text                                   |
        | <country>.conf | currency = <currency>\nvat = <percent> |
      Then the file "<country>.conf" should contain "<currency>"
      And the file "<country>.conf" should be:
        """
        currency = <currency>
        vat = <percent>
        """

      Examples: in use
        | country | currency | percent |
        | de      | EUR      | 19      |
        | ch      | CHF      | 8       |
