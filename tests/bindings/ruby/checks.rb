# frozen_string_literal: true

require 'bikleinu'

# What the tests in Ruby share: checks, each with what a block answers or the error that it raises.
module Checks
  TOP = File.expand_path('../../..', __dir__)
  COUNTS = { passed: 0, failed: 0 } # rubocop:disable Style/MutableConstant

  module_function

  # What a block answers, or the class and the words of its error.
  def made
    yield
  rescue Exception => e # rubocop:disable Lint/RescueException
    raise if e.is_a?(Interrupt)

    "#{e.class}: #{e.message}"
  end

  # Counts a check, and prints what isn't well: what the block answers is to be this, or to match it.
  def same(what, wanted, &)
    found = made(&)
    well = wanted.is_a?(Regexp) ? wanted.match?(found.to_s) : found == wanted
    count(well)
    puts "#{what}: #{found.inspect[0, 600]}, and #{wanted.inspect[0, 600]} is wanted" unless well
  end

  def count(well)
    COUNTS[well ? :passed : :failed] += 1
  end

  # Prints how many checks are well, at the end.
  def report
    puts "#{COUNTS[:passed]} passed, #{COUNTS[:failed]} failed"
  end

  def template(source, **options)
    options.empty? ? Bikleinu::Template.parse(source) : Bikleinu::Environment.new(**options).parse(source)
  end
end
