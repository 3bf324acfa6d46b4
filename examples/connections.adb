--  A connection begins with the defaults of its components, in an order that the manual leaves open, before its Initialize is called
--  (RM 3.8, 7.6). The counts are a record without controlled parts: nothing is done where it ends.
with Ada.Finalization; use Ada.Finalization;
with Ada.Text_IO;      use Ada.Text_IO;

procedure Connections is
   type Totals is record
      Opened : Integer := 0;
      Closed : Integer := 0;
   end record;

   type Connection is new Limited_Controlled with record
      Port      : Integer := 8080;
      Is_Secure : Boolean := True;
      Tries     : Integer;
   end record;

   overriding procedure Initialize (X : in out Connection);
   overriding procedure Finalize (X : in out Connection);

   Counts : Totals;

   procedure Initialize (X : in out Connection) is
   begin
      X.Tries := X.Tries + 1;
      X.Port := X.Port + Counts.Opened;
      Counts.Opened := Counts.Opened + 1;
      Put_Line ("open" & Integer'Image (X.Port) & " secure " & Boolean'Image (X.Is_Secure));
   end Initialize;

   procedure Finalize (X : in out Connection) is
   begin
      Counts.Closed := Counts.Closed + 1;
      Put_Line ("close" & Integer'Image (X.Port) & " after" & Integer'Image (X.Tries));
   end Finalize;
begin
   for I in 1 .. 2 loop
      declare
         First, Second : Connection;
         Local         : Totals;
      begin
         First.Tries := First.Tries + I;
         Second.Is_Secure := False;
         Local.Opened := Counts.Opened;
         Put_Line ("in use" & Integer'Image (Local.Opened - Counts.Closed));
      end;
   end loop;
   Put_Line ("opened" & Integer'Image (Counts.Opened) & " closed" & Integer'Image (Counts.Closed));
end Connections;
