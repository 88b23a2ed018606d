# frozen_string_literal: true

require_relative 'checks'

extend Checks

# How many bytes this process holds, when Ruby has collected.
def held
  GC.start
  File.read('/proc/self/statm').split[1].to_i * 4096
end

# A hundred thousand renderings with a filter, data as a Hash and a partial, and some of each kind that end early, hold no more than the
# first ten thousand did.
environment = Bikleinu::Environment.new(filters: { money: ->(cents) { "#{cents} EUR" } }, partials: { 'end' => '{{ from }}' })
template = environment.parse("Dear {{ name }}: {% if priced %}{{ cents | money }}{% endif %}{% include 'end' %}")
early = [
  -> { template.page(name: 1, cents: 2) },
  -> { Bikleinu::Template.parse('{{ a') },
  -> { template.page(name: 1.5) },
  -> { template.page(name: 1, cents: nil, from: 2) }
]
pages = lambda do |count|
  count.times do |number|
    template.page('name' => "R#{number}", 'cents' => number, 'from' => 'B.', 'priced' => (number % 5).zero?)
    early[number / 20 % early.length].call if (number % 20).zero?
  rescue Bikleinu::Error
    next
  end
end
pages.call(10_000)
before = held
pages.call(90_000)
grown = held - before
same('100,000 renderings', true) { grown < 8_000_000 || grown }

report
