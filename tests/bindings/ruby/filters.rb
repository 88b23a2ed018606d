# frozen_string_literal: true

require_relative 'checks'
require 'timeout'

extend Checks

# Filters as a user of Liquid writes them.
module Prices
  def money(cents, currency = 'EUR')
    "#{cents / 100}.#{format('%02d', cents % 100)} #{currency}"
  end

  def shout(text)
    "#{text.upcase}!"
  end

  private

  def hidden(text)
    text
  end
end

def environment(filters, **options)
  Bikleinu::Environment.new(filters:, **options)
end

made = environment(Prices)
made.filter('all') { |*values| values }
made.filter(:same) { |value| value }
made.filter('size', ->(_value) { 'own' })
made.filter('twice', Class.new { def call(number) = number * 2 }.new)
data = { 'a' => { 'b' => ['x', nil, true, -3], 'c"' => "\u{e9}\n" }, 'n' => 1999 }
{
  "{{ n | money }}, {{ 5 | money: 'USD' }}" => '19.99 EUR, 0.05 USD',
  "{{ 'a' | shout | append: '?' | shout }}" => 'A!?!',
  "{{ 'abc' | size }}" => 'own',
  '{{ a.b | same | last }}{% assign s = a | same %}{{ s.b[0] }}' => '-3x',
  "{{ 1 | all: 'b', true | join: '-' }}" => '1-b-true',
  "{% if n > 1 %}{{ n | money }}{% else %}{{ 'x' | money }}{% endif %}" => '19.99 EUR',
  '{{ 4 | twice }}' => '8'
}.each { |source, text| same(source, text) { made.parse(source).render!(data) } }
same('a private method', :unknown_filter) do
  made.parse('{{ 1 | hidden }}')
rescue Bikleinu::SyntaxError => e
  e.kind
end
same('too many arguments', /\ABikleinu::SyntaxError: FilterArguments: line 1, column 8: `money` takes at most 1/) do
  made.parse('{{ 1 | money: 2, 3 }}')
end
same('too few', /\ABikleinu::SyntaxError: FilterArguments/) { environment({ f: ->(one, two) { one + two } }).parse('{{ 1 | f }}') }
same('no input', /\AArgumentError: the filter `f` takes its input/) { environment({ f: -> { 1 } }) }
same('a block without one', /\AArgumentError: the filter `f` takes its input/) { made.filter('f') { 1 } }
same('a word that is needed', /\AArgumentError: the filter `f` takes its input/) { environment({ f: ->(one, two:) { one + two } }) }
same('no function', 'ArgumentError: the filter `f` has no function') { made.filter('f') }
same('a number', 'TypeError: the filter `f` is a value of the class Integer') { made.filter('f', 3) }
same('a class', 'TypeError: filters are a Module, not a value of the class Class') { made.register_filter(Bikleinu::Template) }
same('a name', /\AEncodingError: a filter's name isn't UTF-8/) { made.filter("\xff") { |it| it } }
Bikleinu::Template.register_filter(Prices)
same('filters of all templates', '0.01 EUR') { Bikleinu::Template.parse('{{ 1 | money }}').render! }

# Each call is made once, also for further pages.
asked = []
twice = environment({ twice: ->(number) { asked.push(number) && (number * 2) } })
template = twice.parse('{% for i in (1..3) %}{{ i | twice }},{{ 2 | twice }};{% endfor %}{{ n | twice }}')
same('pages', ['2,4;4,4;6,4;8', '2,4;4,4;6,4;10', [1, 2, 3, 4, 5]]) { [template.render(n: 4), template.render(n: 5), asked.sort] }

# An error of a function ends a page that makes the call, and isn't kept.
Lost = Class.new(StandardError)
fails = true
shelf = environment({ look_up: ->(key) { fails ? raise(Lost, "no #{key}\nin the \xff shelf") : 'found' }, half: ->(number) { number / 2.0 } })
template = shelf.parse("a{{ 'b' | look_up }}c")
page = template.page
same('the page up to it', ['a', :invalid_input, 11]) { [page.text, page.fault.kind, page.fault.column] }
same('what it says', '`look_up`: Lost: no b in the ? shelf') { page.fault.reason }
same('its cause', Lost) { page.fault.cause.class }
same('the page with its line', /\AaLiquid error: InvalidInput: line 1, column 11: `look_up`/) { template.render }
same('render!', /\ABikleinu::ArgumentError: InvalidInput: line 1, column 11/) { template.render! }
same('errors', [Bikleinu::ArgumentError]) { template.errors.map(&:class) }
fails = false
same('the next page', 'afoundc') { template.render! }
same('no errors', []) { template.errors }
same('a call that the page does not come to', 'ok') { shelf.parse("{% if false %}{{ 'x' | look_up }}{% endif %}ok").render! }
same('an answer that is none', /`half`: Bikleinu::DataError: Float: answer: 1.5 is a Float/) { shelf.parse('{{ 3 | half }}').page.fault.reason }
stops = environment({ out: ->(_it) { throw :out, 7 }, ends: ->(_it) { raise NotImplementedError, 'not yet' }, slow: ->(_it) { sleep } })
same('throw', 7) { catch(:out) { stops.parse('{{ 1 | out }}').render } }
same('an error of the program', 'NotImplementedError: not yet') { stops.parse('{{ 1 | ends }}').render }
same('a time that is over', 'Timeout::Error: execution expired') { Timeout.timeout(0.05) { stops.parse('{{ 1 | slow }}').render } }
same('the page after them', 'x') { stops.parse('x').render }
nesting = environment({ inner: ->(it) { it.zero? ? 'end' : NESTING.parse('[{{ n | inner }}]').render!(n: it - 1) } })
NESTING = nesting
same('a filter that renders', '[[end]]') { nesting.parse('{{ 2 | inner }}').render! }

# Rounds are bounded.
source = '{% assign x = 0 %}{% for i in (1..n) %}{% assign x = x | next %}{% endfor %}{{ x }}'
count = { next: ->(number) { (number || 0) + 1 } }
same('forty rounds', '40') { environment(count).parse(source).render!(n: 40) }
same('too many', ['', :rounds_reached, Bikleinu::LimitError]) do
  page = environment(count).parse(source).page(n: 400)
  [page.text, page.fault.kind, page.fault.class]
end
same('few', /after 3 rounds/) { environment(count, rounds: 3).parse(source).page(n: 7).fault.message }
same('few for a call', /after 2 rounds/) { environment(count).parse(source).page({ n: 7 }, rounds: 2).fault.message }

# Partials that are parsed with the first template know the filters that were added until then.
late = Bikleinu::Environment.new(partials: { 'price' => '{{ cents | money }}' }).register_filter(Prices)
same('in a partial', '2.50 EUR') { late.parse("{% render 'price', cents: 250 %}").render! }

# The sets of filters that the library has itself, over what the data of each page say.
shop = Bikleinu::Environment.new(filters: :shopify).filter('own') { |it| "#{it}!" }
money = shop.parse('{{ 1999 | money | own }}')
same('a shop', ['EUR 19.99!', '19.99 EUR!', '$ 19.99!']) do
  [money.render!(shop: { money_format: 'EUR {{amount}}' }), money.render!('{"shop": {"money_format": "{{amount}} EUR"}}'), money.render!]
end
same('keys of shops', false) { money.seen_key(shop: { money_format: 'a' }) == money.seen_key(shop: { money_format: 'b' }) }
rows = { 'xs' => [{ 'a' => 1 }, { 'a' => 2 }], 'site' => { 'url' => 'https://example.org', 'baseurl' => '/b' } }
urls = Bikleinu::Environment.new(filters: 'jekyll').parse("{{ '/t' | absolute_url }} {{ xs | where_exp: 'x', 'x.a > 1' | size }}")
same('a site of the data', 'https://example.org/b/t 1') { urls.render!(rows) }
same('data for its template', 'https://example.org/b/t 1') { urls.render!(urls.data(JSON.generate(rows))) }
same('decimals', '59.97&lt;') { Bikleinu::Environment.new(filters: :decimals, escape: true).parse("{{ p | decimal_times: 3 }}{{ '<' }}").render!(p: '19.99') }
same('no such set', /\AArgumentError: filters: is :shop, and :decimals, :jekyll or :shopify is wanted/) { Bikleinu::Environment.new(filters: :shop) }

# Escaping.
safe = Bikleinu::Environment.new(escape: true, partials: { 'p' => '{{ a }}' })
same('escaped', '&lt;<&lt;&lt;') { safe.parse("{{ a }}{{ a | raw }}{% cycle a %}{% include 'p' %}").render!(a: '<') }
same('as it is', '<') { Bikleinu::Environment.new(escape: false).parse('{{ a }}').render!(a: '<') }
same('no raw', /UnknownFilter/) { template('{{ a | raw }}') }

# Jekyll's filters over a site, which the library answers, but for those of the caller's.
urls = "{{ '/a b' | absolute_url }} {{ '/t' | relative_url }} {{ xs | where: 'a', 1 | jsonify }}"
things = { 'xs' => [{ 'a' => 1 }, { 'a' => 2 }] }
placed = Bikleinu::Environment.new(jekyll: true, site: ['https://example.org', '/blog'])
same('a site', 'https://example.org/blog/a%20b /blog/t [{"a":1}]') { placed.parse(urls).render!(things) }
replaced = Bikleinu::Environment.new(site: ['', '/b'], filters: { 'relative_url' => ->(url) { "own #{url}" } })
same('a filter in place of one', '/b/a%20b own /t [{"a":1}]') { replaced.parse(urls).render!(things) }
same('a date that is none', :invalid_input) { placed.parse('{{ 1 | date_to_string }}').page.fault.kind }
same('an argument too few', /\ABikleinu::SyntaxError: FilterArguments/) { placed.parse('{{ 1 | where: 2 }}') }
same('no site', /\ABikleinu::SyntaxError: UnknownFilter/) { Bikleinu::Environment.new(jekyll: true).parse('{{ 1 | jsonify }}') }
same('a site of one part', /\ATypeError: site: is "x", and an address/) { Bikleinu::Environment.new(site: 'x') }
same('a base path of nil', /\ATypeError: a part of site: is a String, not nil/) { Bikleinu::Environment.new(site: ['', nil]) }
same('an address of no text', /\AEncodingError: a part of site:/) { Bikleinu::Environment.new(site: ["\xff", '']) }

# Ten thousand mails on four threads, with a filter; each thousandth has a fault, which is reported with its place.
mails = Bikleinu::Environment.new(filters: Prices, partials: { 'end' => "\n{{ from }}" })
template = mails.parse("Dear {{ name }}: {{ cents | money }}{% include 'end' %}")
faults = []
mail = lambda do |number|
  given = { 'name' => "R#{number}", 'cents' => number % 500, 'from' => 'B.' }
  given.delete('from') if (number % 1000).zero?
  shown = template.page(given)
  faults << [number, shown.fault.partial, shown.fault.line] if shown.fault
  wanted = "Dear R#{number}: #{number % 500 / 100}.#{format('%02d', number % 100)} EUR\n"
  shown.text != (shown.fault ? wanted : "#{wanted}B.")
end
threads = (1..4).map { |first| Thread.new { (first..10_000).step(4).count(&mail) } }
same('mails', [0, 0, 0, 0]) { threads.map(&:value) }
same('their faults', (1000..10_000).step(1000).map { |number| [number, 'end', 2] }) { faults.sort }

report
