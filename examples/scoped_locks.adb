--  A guard whose parts are controlled (RM 7.6, 7.6.1): its two locks are taken before the guard is initialized, and given back behind its
--  own finalization. Where a lock is denied, the one that was taken is given back, and there never was a guard.
with Ada.Finalization; use Ada.Finalization;
with Ada.Text_IO;      use Ada.Text_IO;

procedure Scoped_Locks is
   Denied : exception;
   Taken  : Integer := 0;

   type Lock is new Limited_Controlled with record
      Number : Integer := 0;
   end record;

   overriding procedure Initialize (X : in out Lock);
   overriding procedure Finalize (X : in out Lock);

   type Locks is record
      First  : Lock;
      Second : Lock;
   end record;

   type Guard is new Limited_Controlled with record
      Held  : Locks;
      Calls : Integer := 0;
   end record;

   overriding procedure Initialize (X : in out Guard);
   overriding procedure Finalize (X : in out Guard);

   procedure Initialize (X : in out Lock) is
   begin
      if Taken = 3 then
         Put_Line ("denied");
         raise Denied;
      end if;
      Taken := Taken + 1;
      X.Number := Taken;
      Put_Line ("take" & Integer'Image (X.Number));
   end Initialize;

   procedure Finalize (X : in out Lock) is
   begin
      Put_Line ("give back" & Integer'Image (X.Number));
   end Finalize;

   procedure Initialize (X : in out Guard) is
   begin
      Put_Line ("guard over" & Integer'Image (X.Held.First.Number) & " and" & Integer'Image (X.Held.Second.Number));
   end Initialize;

   procedure Finalize (X : in out Guard) is
   begin
      Put_Line ("calls of the guard:" & Integer'Image (X.Calls));
   end Finalize;

   procedure Work is
      G : Guard;
   begin
      G.Calls := G.Calls + 1;
      Put_Line ("work");
   end Work;
begin
   Work;
   Work;
exception
   when Denied =>
      Put_Line ("no second guard");
end Scoped_Locks;
