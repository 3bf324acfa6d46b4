--  Tickets have numbers. A ticket that is given a number says it when it is finalized (RM 3.9.1, 7.6.1).
with Ada.Finalization; use Ada.Finalization;
with Ada.Text_IO;      use Ada.Text_IO;

procedure Tickets is
   Given : Integer := 0;

   type Ticket is new Controlled with record
      Number : Integer;
      Valid  : Boolean;
      Uses   : Integer;
   end record;

   overriding procedure Initialize (X : in out Ticket);
   overriding procedure Finalize (X : in out Ticket);

   procedure Initialize (X : in out Ticket) is
   begin
      Given := Given + 1;
      X.Number := Given;
      X.Valid := Given mod 2 = 1;
      Put_Line ("give" & Integer'Image (X.Number) & Integer'Image (X.Uses));
   end Initialize;

   procedure Finalize (X : in out Ticket) is
   begin
      if X.Valid then
         Put_Line ("take back" & Integer'Image (X.Number) & " used" & Integer'Image (X.Uses));
      end if;
   end Finalize;

   A : Ticket;
begin
   A.Uses := 7;
   for I in 1 .. 2 loop
      declare
         B, C : Ticket;
      begin
         B.Uses := I * 10;
         C.Uses := B.Uses + A.Uses;
         A.Uses := A.Uses + C.Number;
         Put_Line ("loop" & Integer'Image (C.Uses));
      end;
   end loop;
   Put_Line ("end" & Integer'Image (A.Uses) & Boolean'Image (A.Valid and A.Number = 1));
end Tickets;
