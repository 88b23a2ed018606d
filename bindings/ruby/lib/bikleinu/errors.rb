# frozen_string_literal: true

# What is reported where there is no page, or where a page ends early.
module Bikleinu
  # The kinds of faults, by the numbers of the library for C.
  KINDS = {
    1 => :unknown_variable, 2 => :invalid_input, 3 => :invalid_argument, 4 => :unexpected_value, 5 => :number_range,
    6 => :divide_by_zero, 7 => :float, 8 => :cycle_bounds, 9 => :zero_columns, 10 => :range_too_long,
    11 => :unknown_partial, 12 => :partial_name, 13 => :too_deep, 14 => :date_format, 15 => :timezone_range,
    16 => :unsupported, 21 => :unclosed, 22 => :bad_item, 23 => :number_literal, 24 => :float_literal, 25 => :state_word,
    26 => :unknown_tag, 27 => :unknown_filter, 28 => :filter_arguments, 29 => :expected, 30 => :missing_end,
    31 => :too_nested, 101 => :no_text, 103 => :too_many_levels, 104 => :bytes_reached, 105 => :turns_reached,
    106 => :rounds_reached, 110 => :no_word, 111 => :reserved_name, 112 => :taken_name, 114 => :no_values,
    116 => :other_paths
  }.freeze

  # Why there is no page, or why it ends early: its kind, where it stands, and what is said about it. In message all of that
  # stands on one line.
  class Error < ::StandardError
    # The kind, as :unknown_variable, and its number in the library for C.
    attr_reader :kind, :number
    # The line and the column in characters, each from 1, or nil where they aren't known.
    attr_reader :line, :column
    # The name of the partial that the fault stands in, or nil.
    attr_reader :partial
    # What is said about the fault, without its kind and place.
    attr_reader :reason

    alias line_number line
    alias template_name partial

    def initialize(reason = nil, number: nil, name: nil, origin: nil, line: nil, column: nil, partial: nil)
      @reason = reason || 'a fault'
      @number = number
      @kind = KINDS[number]
      @name = name || @kind.to_s.split('_').map(&:capitalize).join
      @origin = origin
      @line = line
      @column = column
      @partial = partial
      super([@name, place, @reason].reject { |it| it.nil? || it.empty? }.join(': '))
    end

    # Where the fault stands, as "in the partial `a`: line 1, column 2", or nil.
    def place
      return unless @line

      among = @partial ? "in the partial `#{@partial}`: " : ('in the data: ' if @origin == :data)
      "#{among}line #{@line}, column #{@column}"
    end
  end

  # A source that the language refuses.
  class SyntaxError < Error; end

  # A value, an argument or an input that a tag or a filter refuses.
  class ArgumentError < Error; end

  # A division by zero.
  class ZeroDivisionError < Error; end

  # A name or a member that the data lack.
  class UndefinedVariable < Error; end

  # A partial that isn't there.
  class FileSystemError < Error; end

  # Partials or blocks that stand in one another deeper than is allowed.
  class StackLevelError < Error; end

  # A page that was ended by bytes:, turns: or rounds:.
  class LimitError < Error; end

  # A value of the data that the language doesn't have: path says where it stands, as a template would name it.
  class DataError < Error
    attr_reader :path

    def initialize(reason = nil, path: '', **known)
      @path = path
      super(reason, **known)
    end

    def place
      @path.empty? ? super || 'the data' : @path
    end

    # Raises the error for the value that these steps lead to.
    def self.refuse(steps, number, reason)
      raise new(reason, number:, path: Paths.text(steps))
    end
  end

  ERRORS = {
    1 => UndefinedVariable, 6 => ZeroDivisionError, 11 => FileSystemError, 13 => StackLevelError, 103 => StackLevelError,
    104 => LimitError, 105 => LimitError, 106 => LimitError
  }.freeze
  LIMITS = {
    103 => 'blocks and partials could stand in one another deeper than levels: allows; allow fewer partials by depth:, ' \
           'or more by levels:',
    104 => 'the page is longer than bytes: allows',
    105 => 'the page takes more turns than turns: allows',
    116 => 'the data were read for another template, and this one uses more of them; read them for this one'
  }.freeze
  # Why a name is none of a tag.
  REFUSALS = {
    110 => "a tag's name is a word: a letter or `_`, then letters, digits, `_` and `-`",
    111 => 'blocks have a use of `else`, `elsif`, `when` and what begins with `end`, so no tag has such a name',
    112 => 'the language has a tag or a block of this name; give yours another',
    114 => "a given value is a value as it stands in a tag, as 'page.title'"
  }.freeze
  ORIGINS = { 1 => :template, 2 => :partial, 3 => :data }.freeze
  private_constant :ERRORS, :LIMITS, :REFUSALS, :ORIGINS

  # Errors of what the library answers.
  module Fault
    TEXT = 0
    MESSAGE = 1
    NAME = 2
    PARTIAL = 3

    # The error for what a call made, of which the number isn't 0. A template that was parsed is that of a partial of this name.
    def self.of(made, partial = nil)
      number = made.number
      origin, line, column = made.location
      origin = ORIGINS[origin]
      partial = made.text(PARTIAL) if origin == :partial
      known = { origin:, line:, column:, partial: }
      return class_of(number, origin).new(LIMITS[number], number:, **known) if LIMITS.key?(number)

      class_of(number, origin).new(said(made, MESSAGE), number:, name: said(made, NAME), **known)
    end

    # Why a name is refused, by the number that a call answered, or nil.
    def self.refusal(number)
      REFUSALS[number]
    end

    # What a call made, where all is well, and else its error is raised.
    def self.check(made, partial = nil)
      raise of(made, partial) unless made.number.zero?

      made
    end

    # The fault, with an error as its cause.
    def self.caused(fault, error)
      raise fault, cause: error
    rescue Error => e
      e
    end

    def self.said(made, part)
      text = made.text(part)
      text unless text.empty?
    end

    def self.class_of(number, origin)
      return DataError if origin == :data
      return SyntaxError if number.between?(21, 31)

      ERRORS[number] || (number < 16 ? ArgumentError : Error)
    end
    private_class_method :said, :class_of
  end
  private_constant :Fault
end
