# frozen_string_literal: true

module Bikleinu
  # Why a value isn't taken: the number of a kind, and what is said.
  Refusal = Struct.new(:number, :message)
  private_constant :Refusal

  # What is made of values that JSON doesn't have: of floats and BigDecimals, of times and dates, and of objects by their own
  # to_liquid, members, items or pairs.
  class Conversions
    INVALID_INPUT = 2
    FLOAT = 7
    # The longest number that is written out without an exponent.
    DIGITS = 400
    OFFSET = /\A[+-](?:[01]\d|2[0-3]):[0-5]\d\z/
    PLAIN = [NilClass, TrueClass, FalseClass, Integer, String, Symbol, Array, Hash].freeze
    BASES = [Array, Hash, Struct].freeze
    ENDS = %w[size first last].freeze
    # A member that no template names, by which a document is another value than any other one.
    ITSELF = "\u0001"
    OTHER = 'give a Hash, an Array, a String, an Integer, true, false or nil, as value.to_s, or define to_liquid'
    private_constant :INVALID_INPUT, :FLOAT, :DIGITS, :OFFSET, :PLAIN, :BASES, :ENDS, :ITSELF, :OTHER

    attr_reader :decimals, :times

    # Documents are objects of some classes, which lead to one another, and aren't taken whole (see NearPlan).
    def initialize(decimals = nil, times = nil, documents = [])
      raise ::ArgumentError, "decimals is #{decimals.inspect}, and :text or nil is wanted" unless [nil, :text].include?(decimals)
      unless [nil, false, true].include?(times) || (times.is_a?(String) && times.match?(OFFSET))
        raise ::ArgumentError, "times is #{times.inspect}, and true, false or an offset, as \"+02:00\", is wanted"
      end

      @decimals = decimals
      @times = times
      @documents = documents
      freeze
    end

    # What JSON has in place of the value, as far as a plan asks for it, or a Refusal.
    def convert(value, plan)
      made = liquid(value)
      case made
      when Float, BigDecimalLike then decimal(made)
      when Time, DateLike then time(made)
      when Proc then called(made, plan)
      when *PLAIN then made
      when *@documents then document(made, plan)
      else object(made, plan)
      end
    end

    private

    def liquid(value)
      value.respond_to?(:to_liquid) ? value.to_liquid : value
    end

    def called(function, plan)
      return refused(function) unless function.arity.zero?

      made = function.call
      made.is_a?(Proc) ? refused(made) : convert(made, plan)
    end

    def decimal(value)
      return refused(value, "#{value} is a #{value.class}, which JSON doesn't have: give nil or a String") unless value.finite?
      return written(value) if @decimals == :text

      refused(value, "#{value} is a #{value.class}, and numbers are whole here: give an Integer of a smaller unit, as cents, a String, " \
                     'or decimals: :text', FLOAT)
    end

    # The number as Ruby shows it, written out where it isn't too long for that.
    def written(value)
      text = value.to_s
      return text unless text.include?('e')

      require 'bigdecimal'
      whole = BigDecimal(text)
      whole.exponent.abs < DIGITS ? whole.to_s('F') : text
    end

    def time(value)
      return refused(value, "#{value} is a #{value.class}, which JSON doesn't have: give a String, or times: true") unless @times

      made = value.is_a?(Time) ? value : time_of(value)
      return made.strftime('%Y-%m-%d %H:%M:%S %z') if made.year.between?(0, 9998) && (made.utc_offset % 60).zero?

      refused(value, "#{value} is a #{value.class}, which no date of the language is: its offset has whole minutes, and its year " \
                     'is 0 to 9998')
    end

    # A day begins in the zone that times: says, or in UTC. A DateTime has an offset of its own.
    def time_of(date)
      return Time.new(date.year, date.month, date.day, 0, 0, 0, @times == true ? '+00:00' : @times) unless date.respond_to?(:offset)

      Time.new(date.year, date.month, date.day, date.hour, date.minute, date.second, (date.offset * 86_400).to_i)
    end

    # The members that are asked for of an object that has members by name, as a drop, or all of its pairs or items.
    def object(value, plan)
      is_counted = [true, false].include?(plan && plan[0])
      return asked(value, plan[1]) if is_counted && responds?(value, :key?, :[])
      return value.to_h if value.is_a?(Struct) || responds?(value, :keys, :to_h)
      return plan && plan[0] == false ? [] : value.to_a if responds?(value, :each, :to_a)

      responds?(value, :to_hash) ? value.to_hash : refused(value)
    end

    def document(value, plan)
      items, members, is_looped, near, _, own = plan
      if plan.nil? || (near ? is_looped : ![true, false].include?(items))
        return refused(value, "a value of the class #{value.class}, of which the template asks for more than members by their names")
      end

      near ? asked(value, own).merge(ITSELF => value.object_id) : asked(value, members)
    end

    def responds?(value, *names)
      names.all? { |name| value.respond_to?(name) }
    end

    def asked(value, members)
      members.each_slice(4).with_object({}) do |(name, *), made|
        if member?(value, name)
          made[name] = value[name]
        elsif ENDS.include?(name)
          made[name] = nil
        end
      end
    end

    # A Liquid::Drop says of each name that it has it, so its class is asked instead.
    def member?(value, name)
      return false unless value.key?(name)
      return true unless defined?(::Liquid::Drop) && value.is_a?(::Liquid::Drop)

      plain = %i[key? invoke_drop liquid_method_missing].all? { |it| value.method(it).owner == ::Liquid::Drop }
      !plain || value.class.invokable?(name)
    end

    def refused(value, message = nil, number = INVALID_INPUT)
      Refusal.new(number, message || "a value of the class #{value.class}, which JSON doesn't have: #{OTHER}")
    end

    # BigDecimal and Date, where they are loaded.
    module BigDecimalLike
      def self.===(value)
        defined?(::BigDecimal) && value.is_a?(::BigDecimal)
      end
    end

    # Date and DateTime, where they are loaded.
    module DateLike
      def self.===(value)
        defined?(::Date) && value.is_a?(::Date)
      end
    end
    private_constant :BigDecimalLike, :DateLike
  end
  private_constant :Conversions
end
