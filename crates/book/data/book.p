%------------------------------------------------------------------------------
% Pumping works: the rule book of the permit desk
% Design office, sheet 7: water side, sump and rising main
%
%               v1            suction    delivery                v6
%     canal ---|><|---  sump  ---|><|-- p1 --|><|---  main  ---|><|---  tank
%                             ---|><|-- p2 --|><|---
%
% The desk numbers the axioms from 0, in the order of this sheet. A chain of &
% groups to the left; where the desk's book groups to the right, parentheses
% say so. A quantifier takes one unit, hence the parentheses after each colon.
%------------------------------------------------------------------------------

%----Valves and the switchboard
fof(chained_is_shut,axiom,
    ! [Valve] : ( chained(Valve) => shut(Valve) ) ).        % 0

fof(breaker_kills_board,axiom,
    chained(breaker) => dead(board) ).                      % 1

/* Interlocks of the pumps. A pump stands still for want of current or for want
   of water: either one is enough. */
fof(no_current_no_pump,axiom,
    ! [Pump] :
      ( ( pump(Pump) & dead(board) )
     => idle(Pump) ) ).                                     % 2

fof(no_suction_no_pump,axiom,
    ! [Pump] :
      ( ( pump(Pump) & shut(suction(Pump)) )
     => idle(Pump) ) ).                                     % 3

%----Lines: nothing passes either way
fof(blind_line,axiom,
    ! [Pump] :
      ( ( idle(Pump) & shut(delivery(Pump)) )
     => blind(Pump) ) ).                                    % 4

fof(quiet_house,axiom,
    ( ! [Pump] : ( pump(Pump) => idle(Pump) ) )
   => quiet(house) ).                                       % 5

%----Sections
fof(sump_cut_off,axiom,
    ( shut(v1)
    & ( blind(p1) & blind(p2) ) )
   => cut_off(sump) ).                                      % 6

fof(main_cut_off,axiom,
    ( blind(p1)
    & ( blind(p2)
      & ( shut(v6)          /* the tank is held back, */
        | dry(tank) ) ) )   /* or holds nothing       */
   => cut_off(main) ).                                      % 7

fof(drained_is_dry,axiom,
    ! [Section] :
      ( ( cut_off(Section) & open(drain(Section)) )
     => dry(Section) ) ).                                   % 8

/* Key interlock: the key is handed out if, supposing the drain open, the
   section would be dry. */
fof(key_of_the_drain,axiom,
    ! [Section] :
      ( ( open(drain(Section)) => dry(Section) )
     => key(Section) ) ).                                   % 9

fof(hatch_airs,axiom,
    ! [Section] : ( open(hatch(Section)) => aired(Section) ) ). % 10

fof(may_be_entered,axiom,
    ! [Section] :
      ( ( dry(Section)
        & ( aired(Section)
          & ( quiet(house)
            & ? [Who] : watch(Who,Section) ) ) )
     => enter(Section) ) ).                                 % 11

%----What stands in the works
fof(first_pump,axiom,pump(p1)).                             % 12
fof(second_pump,axiom,pump(p2)).                            % 13

%----The sheet of this shift
fof(breaker_chained,axiom,chained(breaker)).                % 14
fof(delivery_of_p1,axiom,chained(delivery(p1))).            % 15
fof(delivery_of_p2,axiom,chained(delivery(p2))).            % 16
fof(sump_drain,axiom,open(drain(sump))).                    % 17
fof(sump_hatch,axiom,open(hatch(sump))).                    % 18
fof(main_hatch,axiom,open(hatch(main))).                    % 19
fof(watch_at_sump,axiom,watch(anna,sump)).                  % 20
fof(watch_at_main,axiom,watch(anna,main)).                  % 21

%----The request: suppose v1 is shut, may the sump be entered?
fof(request,conjecture,
    shut(v1) => enter(sump) ).
%------------------------------------------------------------------------------
