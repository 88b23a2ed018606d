# frozen_string_literal: true

require 'json'

module Bikleinu
  # What a template and its partials ask of their data, as the extension follows it: nil for a whole value, and else a frozen
  # array of the plan of its items (false where none are asked for, true where only their number is), its members, each as a
  # name, a symbol, a text of JSON and its plan, and whether the length of a map is asked for. A NearPlan has more.
  class Plan
    # Steps that an item of a list may be found by, beside the items that a loop goes over.
    ENDS = %w[first last].freeze
    ITEMS = '[]'

    # The plan of paths, as ["customer?","products[].title"].
    def self.of(paths)
      read(paths).frozen(is_root: true)
    end

    # The same, before it is frozen.
    def self.read(paths)
      paths.each_with_object(new) { |path, root| root.add(path) }
    end

    attr_reader :members
    attr_accessor :items, :is_whole, :is_seen

    def initialize
      @members = {}
      @items = nil
      @is_whole = false
      @is_seen = false
    end

    # Adds what one path asks for: one that ends in ? asks for no whole value.
    def add(path)
      at = path.chomp('?').gsub(ITEMS, ".#{ITEMS}").split('.').inject(self) do |plan, step|
        step == ITEMS ? plan.items ||= Plan.new : plan.members[step] ||= Plan.new
      end
      path.end_with?('?') ? at.is_seen = true : at.is_whole = true
    end

    # Adds all that another plan asks for.
    def merge(other)
      self.is_whole ||= other.is_whole
      self.is_seen ||= other.is_seen
      other.members.each { |name, plan| (members[name] ||= Plan.new).merge(plan) }
      (self.items ||= Plan.new).merge(other.items) if other.items
      self
    end

    def frozen(is_root: false)
      return if is_whole

      is_sized = !is_root && members.key?('size')
      all = is_root ? nil : all_items
      [all ? all.frozen : is_sized, named { |inner, _| inner.frozen }, is_sized && !items].freeze
    end

    # The members as the extension takes them, each with the plan that a block makes of its own.
    def named
      members.flat_map { |name, plan| [name.dup.freeze, name.to_sym, "#{name.to_json}:".freeze, yield(plan, name)] }.freeze
    end

    # What is asked of the items of a list, by a loop or by a step to one of them, or nil.
    def all_items
      plans = [items, *members.select { |name, _| ENDS.include?(name) || Integer(name, 10, exception: false) }.values].compact
      plans.inject(Plan.new) { |all, plan| all.merge(plan) } unless plans.empty?
    end
  end
  private_constant :Plan
end
