--  What was allocated and not freed is finalized with the collection of its access type (RM 7.6.1).
with Ada.Finalization; use Ada.Finalization;

procedure Finalize_Collection is
   type T is new Controlled with null record;

   overriding procedure Finalize (X : in out T);

   type Link is access T;

   procedure Finalize (X : in out T) is
   begin
      null;
   end Finalize;

   V : Link := new T;
begin
   null;
end Finalize_Collection;
