# frozen_string_literal: true

require 'json'

module Bikleinu
  # Filters, tags and blocks of the caller's by the names of their filters, and the tables of their answers that the library renders
  # with. Each rendering has a table of its own, which serves later ones.
  class Filters
    # How many answers a table holds before another one is begun.
    ANSWERS = 10_000
    ANY_NUMBER = 2**32
    private_constant :ANSWERS, :ANY_NUMBER

    # Answers of filters, each to one input and its arguments.
    Table = Struct.new(:handle, :version, :answers)

    # A site is an address and a base path, over which the library itself answers Jekyll's filters; a set is the number of one that it
    # answers over what the data of each page say.
    def initialize(site = nil, set = nil)
      @site = site
      @set = set
      @functions = {}
      @tables = []
    end

    def empty?
      @functions.empty? && @site.nil? && @set.nil?
    end

    # Adds a function, in place of the one of that name.
    def add(name, function)
      @functions = @functions.merge(name => function).freeze
    end

    def call(name, values)
      @functions.fetch(name).call(*values)
    end

    # Lends a table, which holds answers of the functions as they are now, for a page over data.
    def lend_table(data = nil)
      functions = @functions
      table = @tables.pop
      unless table && table.version.equal?(functions) && table.answers < ANSWERS
        table&.handle&.release
        table = Table.new(Fault.check(Handle.answers), functions, 0)
        functions.each_key { |name| table.handle.add_filter(name) }
      end
      settle(table.handle, data)
      table
    end

    def give_back(table)
      @tables.push(table)
    end

    # Lets a table answer the library's own filters.
    def settle(handle, data)
      if @set
        empty = Data.read('{}', nil) if data.nil?
        number = handle.use_set(@set, data || empty)
        raise Error.new('the set of filters is not taken', number:) unless number.zero?
      end
      handle.set_site(*@site) if @site
    end
    private :settle

    # The name of the filter that a tag calls. It is no word, so no template calls it otherwise, and a fault shows the tag by it.
    def self.of_tag(name)
      "{% #{name} %}"
    end

    # How many arguments a function takes, beside its input where it has one and keywords that are given: at least, and at most.
    def self.arity(what, function, inputs: 1, keys: [])
      parameters = parameters_of(function).reject { |kind, name| kind == :keyreq && keys.include?(name) }
      required, optional = %i[req opt].map { |kind| parameters.count { |it, _| it == kind } }
      takes_any = parameters.any? { |kind, _| kind == :rest }
      if parameters.any? { |kind, _| kind == :keyreq } || (required + optional < inputs && !takes_any)
        raise ::ArgumentError, "#{what} takes #{'its input and then ' unless inputs.zero?}its arguments by their places"
      end

      [[required - inputs, 0].max, takes_any ? ANY_NUMBER : required + optional - inputs]
    end

    # A block takes any number of arguments where it is called, so it is asked as a method.
    def self.parameters_of(function)
      return function.parameters if !function.is_a?(Proc) || function.lambda?

      Object.new.tap { |it| it.define_singleton_method(:call, &function) }.method(:call).parameters
    end
    private_class_method :parameters_of
  end
  private_constant :Filters

  # A page in the making: rounds of a run and of the calls that it lacks, with the errors that the functions raised.
  class Run
    LACKING = 106
    INVALID_INPUT = 2
    # How much of what an error says goes into the message of a fault.
    SHOWN = 300
    private_constant :LACKING, :INVALID_INPUT, :SHOWN

    def initialize(filters, settings)
      @filters = filters
      @settings = settings
      @errors = {}
    end

    # The page by a block that renders with a table, when each call that it lacked is answered.
    def page(data = nil)
      table = @filters.lend_table(data)
      (0..@settings.rounds).each do |round|
        made = yield table.handle
        return explained(made) if made.number != LACKING

        answer_all(table, made) if round < @settings.rounds
        made.release
      end
      Page.new('', LimitError.new("the page still lacks answers of its filters after #{@settings.rounds} rounds; rounds: allows more",
                                  number: LACKING, name: 'RoundsReached'))
    ensure
      # what a function refused is asked again by the next page
      if table
        @errors.empty? ? @filters.give_back(table) : table.handle.release
      end
    end

    private

    def answer_all(table, calls)
      JSON.parse(calls.text(Fault::TEXT), max_nesting: false).each_with_index do |(name, *values), number|
        answer(table.handle, calls, number, name, values)
        table.answers += 1
      end
    end

    def answer(table, calls, number, name, values)
      data = answer_of(name, values)
      settled = data ? table.answer(calls, number, data) : table.refuse(calls, number, INVALID_INPUT, @refusal)
      raise Error.new("an answer of the filter `#{name}` is not taken", number: settled) unless settled.zero?

      data&.release
    end

    # What a function answers as data, or nil where it raised an error, whose words are then the refusal.
    def answer_of(name, values)
      Data.read({ 'answer' => @filters.call(name, values) }, @settings.conversions)
    rescue StandardError => e
      @refusal = message_of(e)
      @errors[@refusal] = e
      nil
    end

    # The page, whose fault has the error that it comes of as its cause.
    def explained(made)
      page = Page.of(made)
      return page if @errors.empty? || page.fault.nil?

      message = @errors.keys.select { |it| page.fault.reason.include?(it) }.max_by(&:length)
      message ? Page.new(page.text, Fault.caused(page.fault, @errors[message])) : page
    end

    # What an error says, on one line.
    def message_of(error)
      said = Paths.shown(error.message.to_s.scrub('?').split.join(' '), SHOWN)
      said.empty? ? error.class.to_s : "#{error.class}: #{said}"
    end
  end
  private_constant :Run
end
