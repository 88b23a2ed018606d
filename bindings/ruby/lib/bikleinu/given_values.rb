# frozen_string_literal: true

module Bikleinu
  # The values that are given with a tag or a block, by the keywords of its function: { title: 'page.title' }.
  class GivenValues
    attr_reader :keys

    def initialize(given)
      raise TypeError, "given: is a Hash, not a value of the class #{given.class}" unless given.is_a?(Hash)

      @keys = given.keys.map { |key| key.is_a?(String) ? key.to_sym : key }.freeze
      @paths = given.map { |key, path| path_of(key, path) }.freeze
    end

    def count
      @keys.length
    end

    # The values as the library reads them.
    def text
      @paths.join(', ')
    end

    # What calls the function with the values of a tag, without so many inputs before them, and with the given ones as keywords.
    def passed_to(function, inputs:)
      count = @keys.length
      lambda do |*values|
        given = count.zero? ? [] : values.pop(count)
        function.call(*values.drop(inputs), **@keys.zip(given).to_h)
      end
    end

    private

    # One value each, so that each has its keyword.
    def path_of(key, path)
      path = Text.utf8(path, "the given value #{key.inspect}")
      raise ::ArgumentError, "the given value #{key.inspect} is one value, as 'page.title', and has no comma" if path.strip.empty? || path.include?(',')

      path
    end
  end
  private_constant :GivenValues
end
