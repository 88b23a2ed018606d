# frozen_string_literal: true

module Bikleinu
  # A plan that asks for less than paths do, by what a host knows of its templates and of its documents: objects that lead to one
  # another, so that none of them can be taken whole.
  #
  # Each array of it has, after what those of a Plan have, the plan of what isn't named in a value that is whole but for its
  # documents, whether a text is asked for by loops alone, which then go over it once, and the members that are asked for of a
  # document there. Where a value is whole but for documents the third says whether a loop may go over it.
  class NearPlan
    # The plan of paths, where near ones leave out that values are passed on or compared, and looped ones say which texts have
    # no other uses than loops.
    def self.of(paths, near, looped)
      new.of(*[paths, near, looped].map { |it| Plan.read(it) })
    end

    def initialize
      @documents = []
      @names = {}
      @rest = []
      @rest.push(@rest, [].freeze, false, @rest, false, @documents).freeze
    end

    def of(plan, near, looped)
      made = [false, named(plan, near, looped), false].freeze
      @documents.concat(@names.keys.flat_map { |name| [name, nil, nil, nil] }).freeze
      made
    end

    private

    def part(plan, near, looped)
      if plan.is_whole
        gather(near)
        return whole(near, looped)
      end

      items = plan.all_items
      is_sized = plan.members.key?('size')
      items = items ? part(items, items_of(near), items_of(looped)) : is_sized
      [items, named(plan, near, looped), is_sized && !plan.items, nil, looped?(looped)].freeze
    end

    def named(plan, near, looped)
      plan.named { |inner, name| part(inner, member_of(near, name), member_of(looped, name)) }
    end

    # What a plan asks of the parts of a value: all where the value is whole.
    def member_of(plan, name)
      plan&.is_whole ? plan : plan&.members&.fetch(name, nil)
    end

    def items_of(plan)
      plan&.is_whole ? plan : plan&.all_items
    end

    # Adds to the members of documents, which have the same ones wherever they stand, so that two can be compared.
    def gather(near)
      return if near.nil? || near.is_whole

      near.members.each_key { |name| @names[name] = true }
      [near.items, *near.members.values].each { |inner| gather(inner) }
    end

    # What is whole by the paths: so are its parts, but for documents, of which no more is asked than the near ones say.
    def whole(near, looped)
      return @rest unless near
      return if near.is_whole

      items = near.all_items
      members = near.named { |inner, name| whole(inner, member_of(looped, name)) }
      [items ? whole(items, items_of(looped)) : @rest, members, !items.nil?, @rest, looped?(looped), @documents].freeze
    end

    def looped?(plan)
      plan&.items && plan.members.empty? && !plan.is_whole && !plan.is_seen
    end
  end

  # Finds near plans, by sources as a host writes them for that: passed(source), in which the engine's paths follow what is passed
  # on, and compared values aren't asked for, and looped(source), in which a text that isn't only looped over is asked for otherwise.
  class NearPlans
    WAYS = %i[passed looped].freeze
    private_constant :WAYS

    def initialize(environment, host)
      @environment = environment
      @host = host
      @handles = {}
    end

    # The plan of a template's paths, with partials.
    def of(paths, source, state)
      NearPlan.of(paths, *WAYS.map { |way| paths_by(way, source, state) })
    end

    private

    def paths_by(way, source, state)
      written, others = @environment.partials.reached(source, state) { |text| @host.public_send(way, text) }
      made = @environment.parsed(written).paths(handle_of(others))
      JSON.parse(Fault.check(made).text(Fault::TEXT))
    end

    def handle_of(sources)
      @handles[sources] ||= Partials.handle_of(sources) { |name, source| @environment.parsed(source, name) }
    end
  end
  private_constant :NearPlan
  private_constant :NearPlans
end
