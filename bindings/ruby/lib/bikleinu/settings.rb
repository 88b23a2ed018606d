# frozen_string_literal: true

module Bikleinu
  # What a rendering does where its call says nothing: how deep partials may stand in one another, its limits, what stands for
  # what the data lack, and the conversions.
  class Settings
    USUAL = { depth: 32, levels: nil, bytes: nil, turns: nil, rounds: 100, missing: :fault }.freeze
    OF_A_CALL = %i[depth levels bytes turns rounds missing].freeze
    SMALL = (2**32) - 1
    ANY = (2**64) - 1
    MOST = { depth: SMALL, levels: SMALL, rounds: SMALL, bytes: ANY, turns: ANY }.freeze
    LEAST = { levels: 1, rounds: 1 }.freeze
    # What stands here for options of Liquid's.
    IN_PLACE = {
      filters: 'filters are of the environment: environment.register_filter(module)', registers: 'no filter or tag reads registers'
    }.freeze
    private_constant :USUAL, :OF_A_CALL, :SMALL, :ANY, :MOST, :LEAST, :IN_PLACE

    attr_reader :depth, :rounds, :limits, :conversions

    def initialize(conversions, **options)
      @conversions = conversions
      @options = USUAL.merge(options) { |_name, usual, given| given.nil? ? usual : given }.freeze
      MOST.each { |name, most| check(name, @options[name], LEAST.fetch(name, 0), most) }
      raise ::ArgumentError, "missing is #{missing.inspect}, and :fault or :nil is wanted" unless %i[fault nil].include?(missing)

      @depth = @options[:depth]
      @rounds = @options[:rounds]
      @limits = [@options[:levels] || 0, @options[:bytes] || ANY, @options[:turns] || ANY, missing == :nil].freeze
      freeze
    end

    # These settings with the options of a call.
    def with(options)
      return self if options.nil?
      raise TypeError, "options are a Hash, not a value of the class #{options.class}" unless options.is_a?(Hash)
      return self if options.empty?

      options = own(options)
      unknown = (options.keys - OF_A_CALL).first
      raise ::ArgumentError, "unknown option: #{unknown.inspect}; #{IN_PLACE[unknown] || "known are #{OF_A_CALL.join(', ')}"}" if unknown

      Settings.new(@conversions, **@options, **options)
    end

    private

    # The options with what Liquid's stand for: strict_variables: says what becomes of a missing value, and a filter that isn't known is
    # refused with its source.
    def own(options)
      raise ::ArgumentError, 'strict_filters is false, and an unknown filter is a SyntaxError' if options[:strict_filters] == false

      own = options.reject { |name, _| %i[strict_variables strict_filters].include?(name) }
      own[:missing] ||= options[:strict_variables] ? :fault : :nil if options.key?(:strict_variables)
      own
    end

    def missing
      @options[:missing]
    end

    def check(name, value, least, most)
      return if value.nil?
      raise TypeError, "#{name} is an Integer, not a value of the class #{value.class}" unless value.is_a?(Integer)
      raise RangeError, "#{name} is #{value}, and #{least} to #{most} is wanted" unless value.between?(least, most)
    end
  end
  private_constant :Settings

  # Texts that callers give.
  module Text
    # The text as UTF-8. What a text is for stands in the error where it isn't one.
    def self.utf8(text, what)
      raise TypeError, "#{what} is a String, not #{text.nil? ? 'nil' : "a value of the class #{text.class}"}" unless text.is_a?(String)
      return text if text.encoding == Encoding::UTF_8 && text.valid_encoding?

      if [Encoding::UTF_8, Encoding::BINARY, Encoding::US_ASCII].include?(text.encoding)
        made = text.dup.force_encoding(Encoding::UTF_8)
        raise EncodingError, "#{what} isn't UTF-8: line #{broken_line(made)} has another byte" unless made.valid_encoding?

        return made
      end
      recoded(text, what)
    end

    def self.recoded(text, what)
      text.encode(Encoding::UTF_8)
    rescue EncodingError => e
      raise EncodingError, "#{what} can't be made UTF-8: #{e.message}"
    end

    def self.broken_line(text)
      text.each_line.with_index(1) { |line, number| return number unless line.valid_encoding? }
      1
    end
    private_class_method :recoded, :broken_line
  end
  private_constant :Text
end
